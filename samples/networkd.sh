# Runs systemd-networkd until it has set up the links, with the files of a folder in place of those in /etc/systemd/network:
#
#     unshare --mount sh samples/networkd.sh FOLDER
#
# It changes mounts, so run it in a mount namespace of its own. Since /sys is read-only there, systemd-networkd doesn't wait for
# udev. The status is 1 if a link isn't set up after 30 seconds.
set -e
mount --bind "$1" /etc/systemd/network
mkdir -p /run/systemd/netif
mount -t tmpfs -o mode=755,uid=systemd-network,gid=systemd-network tmpfs /run/systemd/netif
mount -t sysfs -o ro sysfs /sys

# Whether links are set up, and none waits for it.
is_set_up() {
    grep -qs '^ADMIN_STATE=configured' /run/systemd/netif/links/* &&
        ! grep -qs '^ADMIN_STATE=\(pending\|initialized\|configuring\)' /run/systemd/netif/links/*
}

SYSTEMD_LOG_LEVEL=err /usr/lib/systemd/systemd-networkd &
end=$(($(date +%s) + 30)) quiet=0
while [ $quiet -lt 10 ]; do # for two seconds, in which another link may appear
    [ "$(date +%s)" -lt $end ] || { echo "a link isn't set up after 30 seconds" >&2; kill $!; exit 1; }
    sleep 0.2
    if is_set_up; then quiet=$((quiet + 1)); else quiet=0; fi
done
kill $!
wait $!
