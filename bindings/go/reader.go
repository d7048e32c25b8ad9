//go:build cgo && linux

package linkcap

import (
	"encoding/binary"
	"io"
)

// A Reader reads a capture from another reader, in pieces of any sizes, and returns its normal text, or its lines. Read
// returns io.EOF after those of a legal capture, and an [*Error], whose Written is nil, after those before a fault.
//
// It keeps the bytes of the message that is cut, and the output for one piece.
type Reader struct {
	source     io.Reader
	options    callOptions
	piece      []byte // bytes that were read, and aren't used yet
	messageLen int    // if the piece is shorter, no call writes anything
	output     []byte // texts or lines that calls wrote
	position   int    // the number of bytes of output that Read has returned
	start      uint64 // the start of the piece, in bytes from the capture's start
	kept       error  // the first fault, if messages after it are shown too
	err        error  // the error that Read returns after the output
	buffer     [16 << 10]byte
}

// NewReader is Options{}.NewReader.
func NewReader(source io.Reader) *Reader { return Options{}.NewReader(source) }

// NewReader returns a Reader of a capture's normal text. It uses the limit. If the options aren't valid, Read returns the error of
// Normalize.
func (o Options) NewReader(source io.Reader) *Reader {
	options, err := o.forText()
	return &Reader{source: source, options: options, err: err}
}

// NewLineReader is Options{}.NewLineReader.
func NewLineReader(source io.Reader) *Reader { return Options{}.NewLineReader(source) }

// NewLineReader returns a Reader of a capture's lines, as Lines returns them. With KeepGoing, Read returns the first fault after
// the capture's lines, or after those before a fault of a header. If the options aren't valid, it returns the error of Lines.
func (o Options) NewLineReader(source io.Reader) *Reader {
	options, err := o.forLines(ofLines...)
	return &Reader{source: source, options: options, err: err}
}

// Read reads further bytes of the normal text, or of the lines.
func (r *Reader) Read(to []byte) (int, error) {
	if len(to) == 0 {
		return 0, nil
	}
	for emptyReads := 0; r.position == len(r.output); {
		if r.err != nil {
			return 0, r.err
		}
		if !r.readPiece() {
			if emptyReads++; emptyReads >= 100 {
				return 0, io.ErrNoProgress
			}
		}
	}
	n := copy(to, r.output[r.position:])
	r.position += n
	return n, nil
}

// readPiece reads once from the source, and writes the messages that are whole. It reports whether it got bytes or an error.
func (r *Reader) readPiece() bool {
	n, err := r.source.Read(r.buffer[:])
	r.piece = append(r.piece, r.buffer[:n]...)
	r.output, r.position = r.output[:0], 0
	isLast := err == io.EOF
	if isLast || n > 0 && len(r.piece) >= r.messageLen {
		r.err = r.write(isLast)
	}
	if r.err == nil {
		r.err = err
	}
	if r.err == io.EOF && r.kept != nil {
		r.err = r.kept
	}
	return n > 0 || err != nil
}

// write writes the messages that are whole, and drops their bytes.
func (r *Reader) write(isLast bool) error {
	output, used, err := r.options.appendOutput(r.output, piece{r.piece, r.start, isLast}, &r.kept)
	r.output = output
	if err == nil {
		r.drop(used)
	}
	return err
}

// drop drops the used bytes. The next call waits until the header of the message that is left is there, then until all of it is.
func (r *Reader) drop(used int) {
	r.start += uint64(used)
	if used > 0 {
		r.piece = r.piece[:copy(r.piece, r.piece[used:])]
	}
	r.messageLen = headerLen
	if len(r.piece) >= headerLen {
		r.messageLen = int(binary.LittleEndian.Uint32(r.piece))
	}
}
