module linkcap.invalid/linkcap/vishvananda_test

go 1.19

require (
	github.com/vishvananda/netlink v1.1.0
	golang.org/x/sys v0.3.0
	linkcap.invalid/linkcap v0.0.0
)

require github.com/vishvananda/netns v0.0.0-20200728191858-db3c7e526aae // indirect

// The folders of Debian's packages golang-github-vishvananda-netlink-dev and what it needs.
replace (
	github.com/vishvananda/netlink => /usr/share/gocode/src/github.com/vishvananda/netlink
	github.com/vishvananda/netns => /usr/share/gocode/src/github.com/vishvananda/netns
	golang.org/x/sys => /usr/share/gocode/src/golang.org/x/sys
	linkcap.invalid/linkcap => ../
)
