# A network of two bridges and a pair of links, of which one end is a port of a bridge and has a large MTU.
ip link add br0 type bridge
ip link add br1 type bridge
ip link add v0 mtu 9000 type veth peer name v1
ip link set v0 master br0 up
