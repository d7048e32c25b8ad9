package linkcaptest

import (
	"fmt"
	"strings"
)

// context is the number of lines that are shown around a difference.
const context = 3

// maxCells bounds the table of the longest common subsequence. Longer differences are shown as a whole.
const maxCells = 4 << 20

// A diffLine is a line with ' ' if both texts have it, '-' if the first does and '+' if the second does.
type diffLine struct {
	mark byte
	text string
}

// Diff returns the lines of two texts that differ, marked by - and +, with the lines around them and the first line of
// each such message.
func Diff(first, second, a, b string) string {
	all := align(strings.SplitAfter(a, "\n"), strings.SplitAfter(b, "\n"))
	isSelected := selectLines(all)
	var out strings.Builder
	fmt.Fprintf(&out, "--- %s\n+++ %s\n", first, second)
	for i, line := range all {
		switch {
		case isSelected[i] && strings.HasSuffix(line.text, "\n"):
			fmt.Fprintf(&out, "%c%s", line.mark, line.text)
		case isSelected[i] && line.text != "":
			fmt.Fprintf(&out, "%c%s\n\\ No newline at end of file\n", line.mark, line.text)
		case i > 0 && isSelected[i-1] && line.text != "":
			out.WriteString("@@\n")
		}
	}
	return out.String()
}

// align pairs equal lines: those of the longest common prefix and suffix, and a longest common subsequence of the others.
func align(a, b []string) []diffLine {
	start := commonPrefix(a, b)
	end := commonSuffix(a[start:], b[start:])
	all := appendMarked(nil, ' ', a[:start])
	x, y := a[start:len(a)-end], b[start:len(b)-end]
	if len(x)*len(y) > maxCells {
		all = appendMarked(appendMarked(all, '-', x), '+', y)
	} else {
		all = alignByLengths(all, x, y, commonLengths(x, y))
	}
	return appendMarked(all, ' ', a[len(a)-end:])
}

// appendMarked appends lines with a mark.
func appendMarked(all []diffLine, mark byte, lines []string) []diffLine {
	for _, line := range lines {
		all = append(all, diffLine{mark, line})
	}
	return all
}

func commonPrefix(a, b []string) int {
	n := 0
	for n < len(a) && n < len(b) && a[n] == b[n] {
		n++
	}
	return n
}

func commonSuffix(a, b []string) int {
	n := 0
	for n < len(a) && n < len(b) && a[len(a)-1-n] == b[len(b)-1-n] {
		n++
	}
	return n
}

// commonLengths returns at [i][j] the length of the longest common subsequence of a[i:] and b[j:].
func commonLengths(a, b []string) [][]int32 {
	table := make([][]int32, len(a)+1)
	table[len(a)] = make([]int32, len(b)+1)
	for i := len(a) - 1; i >= 0; i-- {
		table[i] = commonRow(a[i], b, table[i+1])
	}
	return table
}

func commonRow(line string, b []string, next []int32) []int32 {
	row := make([]int32, len(b)+1)
	for j := len(b) - 1; j >= 0; j-- {
		row[j] = next[j]
		if row[j+1] > row[j] {
			row[j] = row[j+1]
		}
		if line == b[j] {
			row[j] = next[j+1] + 1
		}
	}
	return row
}

func alignByLengths(all []diffLine, a, b []string, lengths [][]int32) []diffLine {
	i, j := 0, 0
	for i < len(a) || j < len(b) {
		switch {
		case i < len(a) && j < len(b) && a[i] == b[j]:
			all = append(all, diffLine{' ', a[i]})
			i, j = i+1, j+1
		case j == len(b) || i < len(a) && lengths[i+1][j] >= lengths[i][j+1]:
			all = append(all, diffLine{'-', a[i]})
			i++
		default:
			all = append(all, diffLine{'+', b[j]})
			j++
		}
	}
	return all
}

// selectLines selects the lines near a difference, and the first line of its message, which isn't indented.
func selectLines(all []diffLine) []bool {
	isSelected := make([]bool, len(all))
	message, lastDifference := 0, -context-1
	for i, line := range all {
		if !strings.HasPrefix(line.text, " ") && line.text != "" {
			message = i
		}
		if line.mark != ' ' {
			isSelected[message] = true
			selectRange(isSelected, i-context, i)
			lastDifference = i
		}
		isSelected[i] = isSelected[i] || i-lastDifference <= context
	}
	return isSelected
}

func selectRange(isSelected []bool, from, to int) {
	for i := to; i >= from && i >= 0; i-- {
		isSelected[i] = true
	}
}
