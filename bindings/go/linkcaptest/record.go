package linkcaptest

import (
	"errors"
	"os"
	"os/exec"
	"path/filepath"
	"strings"
	"testing"
)

// cannotRecordStatus is linkrec's exit status if it can't record, and nothingRecorded what linkgold reports then. differsStatus
// is linkgold's exit status if the lines differ from those of the golden file.
const (
	cannotRecordStatus = 125
	nothingRecorded    = "linkgold: nothing was recorded"
	differsStatus      = 1
)

// Record returns the capture of the route messages that a command sends, its threads and child processes included. It runs
// the command in a new network namespace, with the environment and the folder of cmd.
//
// The program linkrec records it, which has to be on the PATH, or named by LINKREC. The test is skipped if there is no
// linkrec, or if it can't record here: it needs strace, and without root a kernel that allows user namespaces. The test
// stops if the command fails.
//
//	linkcaptest.Golden(t, linkcaptest.Record(t, exec.Command("ip", "link", "add", "d0", "type", "dummy")), "testdata/d0.lines")
func Record(t testing.TB, cmd *exec.Cmd) []byte {
	t.Helper()
	linkrec := findProgram(t, "linkrec", "LINKREC")
	noteForCache(pathOf(cmd))
	file := filepath.Join(t.TempDir(), "capture")
	run := exec.Command(linkrec, append([]string{"run", "--netns", "-o", file, "--", cmd.Path}, cmd.Args[1:]...)...)
	run.Env, run.Dir, run.Stdin = cmd.Env, cmd.Dir, cmd.Stdin
	out, err := run.CombinedOutput()
	var exitErr *exec.ExitError
	if errors.As(err, &exitErr) && exitErr.ExitCode() == cannotRecordStatus {
		t.Skipf("linkcap: nothing is recorded here: %s", out)
	}
	if err != nil {
		t.Fatalf("linkcap: %s: %v: %s", cmd.Path, err, out)
	}
	capture, err := os.ReadFile(file)
	if err != nil {
		t.Fatalf("linkcap: %v", err)
	}
	return capture
}

// GoldenCommand compares what a command sends with a golden file, by the program linkgold: its lines have the names of links
// in place of indexes, network namespaces, and what the kernel refused. It runs the command as Record does. The options are
// those of linkgold, for example "--only=newlink", or "--setup=ip link add d0 type dummy".
//
// The program has to be on the PATH, or named by LINKGOLD. The test is skipped if there is none, or if it can't record here.
// It stops if there is no such command.
func GoldenCommand(t testing.TB, cmd *exec.Cmd, path string, options ...string) {
	t.Helper()
	linkgold := findProgram(t, "linkgold", "LINKGOLD")
	// The command may run in another folder.
	path, err := filepath.Abs(path)
	if err != nil {
		t.Fatalf("linkcap: %v", err)
	}
	var arguments []string
	if *update {
		arguments = append(arguments, "--update")
	}
	arguments = append(arguments, options...)
	arguments = append(arguments, path, "--", cmd.Path)
	noteForCache(pathOf(cmd), path)
	run := exec.Command(linkgold, append(arguments, cmd.Args[1:]...)...)
	run.Env, run.Dir, run.Stdin = cmd.Env, cmd.Dir, cmd.Stdin
	out, err := run.CombinedOutput()
	var exitErr *exec.ExitError
	switch {
	case err == nil:
	case errors.As(err, &exitErr) && exitErr.ExitCode() == differsStatus:
		t.Errorf("linkcap: the command doesn't send what the golden file has\n%s", out)
	case strings.Contains(string(out), nothingRecorded):
		t.Skipf("linkcap: nothing is recorded here: %s", out)
	default:
		t.Fatalf("linkcap: %s: %v: %s", cmd.Path, err, out)
	}
}

// noteForCache looks at files that only other programs read, so that go test runs the test anew when they have changed: its cache
// of results depends on the files that the test itself looked at.
func noteForCache(paths ...string) {
	for _, path := range paths {
		_, _ = os.Stat(path)
	}
}

// pathOf returns the path of a command's program, which is relative to the command's folder.
func pathOf(cmd *exec.Cmd) string {
	if filepath.IsAbs(cmd.Path) {
		return cmd.Path
	}
	return filepath.Join(cmd.Dir, cmd.Path)
}

// findProgram returns the path of a program, which a variable may name. The test is skipped if there is none.
func findProgram(t testing.TB, name, variable string) string {
	t.Helper()
	named := os.Getenv(variable)
	if named == "" {
		named = name
	}
	path, err := exec.LookPath(named)
	if err != nil {
		t.Skipf("linkcap: no program %s: put it on the PATH, or name it by %s (%v)", name, variable, err)
	}
	// A name with a separator is relative to the test's folder, and the command may have another one.
	if path, err = filepath.Abs(path); err != nil {
		t.Fatalf("linkcap: %v", err)
	}
	return path
}
