package linkcaptest

import (
	"strings"
	"testing"

	"linkcap.invalid/linkcap"
)

func TestNamesAreReplaced(t *testing.T) {
	r, err := newReplacement([]string{"v.=port", "02:.*=mac"})
	if err != nil {
		t.Fatal(err)
	}
	// Kinds, aliases and addresses of IPv6 stay.
	for _, c := range [][2]string{
		{`  IFLA_IFNAME "v1"`, `  IFLA_IFNAME "port"`},
		{"  IFLA_ADDRESS 02:00:00:00:00:01", "  IFLA_ADDRESS mac"},
		{`  IFLA_MASTER "v2"`, `  IFLA_MASTER "port#2"`},
		{`  IFLA_INFO_KIND "v1"`, `  IFLA_INFO_KIND "v1"`},
		{`  ifinfomsg index "v1" flags 0x0`, `  ifinfomsg index "port" flags 0x0`},
		{"  IFLA_BR_ROOT_ID 8000.020000000001", "  IFLA_BR_ROOT_ID 8000.mac"},
		{`  IFLA_IFALIAS "v2"`, `  IFLA_IFALIAS "v2"`},
		{"  NDA_DST 2:1::2", "  NDA_DST 2:1::2"},
		{`  FRA_IIFNAME "v2"`, `  FRA_IIFNAME "port#2"`},
		{`  IFLA_IFNAME "eth0"`, `  IFLA_IFNAME "eth0"`},
	} {
		if got := r.apply(c[0]); got != c[1] {
			t.Errorf("%s: %s", c[0], got)
		}
	}
}

func TestMalformedReplacements(t *testing.T) {
	for _, word := range []string{"lo", "=lo", "lo=", "lo=1", "l[=link"} {
		if _, err := newReplacement([]string{word}); err == nil || !strings.HasPrefix(err.Error(), word+": ") {
			t.Errorf("%s: %v", word, err)
		}
	}
}

func TestReplace(t *testing.T) {
	path := writeGolden(t, makeLink(1))
	run := func(word string) *fakeTest {
		return runFake(func(t testing.TB) {
			GoldenWith(t, makeLink(1), path, linkcap.Options{}, word)
		})
	}
	if f := run("none=N"); f.message != "" {
		t.Error(f.message)
	}
	if f := run("none"); !f.stopped || !strings.Contains(f.message, "none: not of the form REGEX=NAME") {
		t.Error(f.message)
	}
}
