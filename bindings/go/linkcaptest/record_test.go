package linkcaptest

import (
	"fmt"
	"os"
	"os/exec"
	"path/filepath"
	"strings"
	"testing"

	"linkcap.invalid/linkcap"
)

func (f *fakeTest) Skipf(format string, a ...any) {
	f.message += "skipped: " + fmt.Sprintf(format, a...)
	panic(stop{})
}

func (f *fakeTest) TempDir() string { return f.folder }

func record(t *testing.T, cmd *exec.Cmd) (capture []byte, f *fakeTest) {
	t.Helper()
	folder := t.TempDir()
	f = runFake(func(inner testing.TB) {
		inner.(*fakeTest).folder = folder
		capture = Record(inner, cmd)
	})
	return capture, f
}

// installScript installs a shell script as linkrec.
func installScript(t *testing.T, script string) {
	t.Helper()
	path := filepath.Join(t.TempDir(), "linkrec")
	if err := os.WriteFile(path, []byte("#!/bin/sh\n"+script), 0o777); err != nil {
		t.Fatal(err)
	}
	t.Setenv("LINKREC", path)
}

func TestRecordWithoutLinkrec(t *testing.T) {
	t.Setenv("LINKREC", filepath.Join(t.TempDir(), "none"))
	if _, f := record(t, exec.Command("true")); !strings.HasPrefix(f.message, "skipped: linkcap: no program linkrec") {
		t.Error(f.message)
	}
	installScript(t, "echo needs the program strace; exit 125")
	const skipped = "skipped: linkcap: nothing is recorded here: needs the program strace\n"
	if _, f := record(t, exec.Command("true")); f.message != skipped {
		t.Error(f.message)
	}
}

func TestRecordPassesTheCommand(t *testing.T) {
	installScript(t, `printf '%s,' "$@" "$MARK" "$(pwd)" > "$4"`)
	cmd := exec.Command("/bin/echo", "a b", "c")
	cmd.Env, cmd.Dir = []string{"MARK=here"}, "/"
	capture, f := record(t, cmd)
	if f.message != "" || !strings.HasPrefix(string(capture), "run,--netns,-o,") ||
		!strings.HasSuffix(string(capture), ",--,/bin/echo,a b,c,here,/,") {
		t.Errorf("%s %q", f.message, capture)
	}
	installScript(t, "echo told; exit 3")
	if _, f := record(t, cmd); !f.stopped || f.message != "linkcap: /bin/echo: exit status 3: told\n" {
		t.Error(f.message)
	}
}

// TestRecordOfIP records ip(8) by the repository's linkrec; it is skipped if linkrec can't record here.
func TestRecordOfIP(t *testing.T) {
	ip, err := exec.LookPath("ip")
	if err != nil {
		t.Skip(err)
	}
	t.Setenv("LINKREC", "../../../scripts/linkrec")
	capture := Record(t, exec.Command(ip, "link", "set", "lo", "up"))
	lines, err := linkcap.Options{Numbers: linkcap.WithoutNumbers, Only: "newlink"}.Lines(capture)
	if err != nil || !strings.HasPrefix(lines, "RTM_NEWLINK flags 0x5 (REQUEST | ACK)\n") {
		t.Errorf("%v %q", err, lines)
	}
}

// goldenCommand runs GoldenCommand, with a shell script as linkgold.
func goldenCommand(t *testing.T, script string, options ...string) *fakeTest {
	t.Helper()
	installScript(t, script)
	t.Setenv("LINKGOLD", os.Getenv("LINKREC"))
	return runFake(func(inner testing.TB) {
		GoldenCommand(inner, exec.Command("/bin/echo", "a b"), "made.lines", options...)
	})
}

func TestGoldenCommand(t *testing.T) {
	folder, err := os.Getwd()
	if err != nil {
		t.Fatal(err)
	}
	if f := goldenCommand(t, "exit 0"); f.message != "" {
		t.Error(f.message)
	}
	f := goldenCommand(t, `printf '%s,' "$@"; exit 1`)
	if f.stopped || f.message != "linkcap: the command doesn't send what the golden file has\n"+folder+"/made.lines,--,/bin/echo,a b," {
		t.Error(f.message)
	}
	f = goldenCommand(t, `printf '%s,' "$@"; exit 1`, "--only=newlink", "--setup=ip link add d0 type dummy")
	if !strings.HasSuffix(f.message, "\n--only=newlink,--setup=ip link add d0 type dummy,"+folder+"/made.lines,--,/bin/echo,a b,") {
		t.Error(f.message)
	}
	f = goldenCommand(t, "echo 'linkgold: /bin/echo: ended with status 3'; exit 2")
	if !f.stopped || f.message != "linkcap: /bin/echo: exit status 2: linkgold: /bin/echo: ended with status 3\n" {
		t.Error(f.message)
	}
	f = goldenCommand(t, "echo 'linkrec: needs the program strace'; echo 'linkgold: nothing was recorded'; exit 2")
	if !strings.HasPrefix(f.message, "skipped: linkcap: nothing is recorded here: linkrec: needs the program strace") {
		t.Error(f.message)
	}
}

// TestGoldenCommandOfIP compares ip(8) with golden files by the repository's linkgold; it is skipped without linkshow, or if
// linkrec can't record here.
func TestGoldenCommandOfIP(t *testing.T) {
	for _, program := range []string{"ip", "linkshow"} {
		if _, err := exec.LookPath(program); err != nil {
			t.Skip(err)
		}
	}
	t.Setenv("LINKGOLD", "../../../scripts/linkgold")
	folder := t.TempDir()
	path, changes := filepath.Join(folder, "made.lines"), filepath.Join(folder, "changes.lines")
	const first = "# linkcap lines, format 4\n"
	const asked = "RTM_GETLINK flags 0x1 (REQUEST)\n" +
		"  ifinfomsg family 0 (AF_UNSPEC) type 0 index 0 flags 0x0 change 0x0\n" +
		"  IFLA_EXT_MASK 0x9 (Vf | SkipStats)\n" +
		"  IFLA_IFNAME \"lo\"\n"
	const changed = "RTM_NEWLINK flags 0x5 (REQUEST | ACK)\n" +
		"  ifinfomsg family 0 (AF_UNSPEC) type 0 index \"lo\" flags 0x1 (Up) change 0x1 (Up)\n"
	for file, lines := range map[string]string{path: first + asked + changed, changes: first + changed} {
		if err := write(file, lines); err != nil {
			t.Fatal(err)
		}
	}
	GoldenCommand(t, exec.Command("ip", "link", "set", "lo", "up"), path)
	GoldenCommand(t, exec.Command("ip", "link", "set", "lo", "up"), changes, "--only=newlink")
	missing := runFake(func(inner testing.TB) { GoldenCommand(inner, exec.Command("./no-such-file"), path) })
	if !missing.stopped || strings.HasPrefix(missing.message, "skipped") {
		t.Error(missing.message)
	}
	f := runFake(func(inner testing.TB) { GoldenCommand(inner, exec.Command("ip", "link", "set", "lo", "down"), path) })
	if !strings.Contains(f.message, "@@ RTM_NEWLINK lo\n") {
		t.Error(f.message)
	}
}
