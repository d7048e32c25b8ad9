# The requests of a network, which scripts/tests/names.sh records and changes. Kernels refuse those of kinds that they don't have.
ip link add br0 up type bridge forward_delay 400
ip link add br1 up type bridge
ip link add va type veth peer name vb
ip link add vc type veth peer name vd
ip link set va mtu 1400
ip link set vc mtu 1500
ip link set va address 02:00:00:00:00:01
ip link set va master br0
ip link set vc master br0 up
bridge link set dev va cost 10
bridge link set dev vc learning off
ip link add link vb name vb.10 up type vlan id 10
ip link add vx10 type vxlan id 100 dstport 4789 dev vb nolearning
ip link set vx10 master br0 up
ip link add bond0 type bond mode 802.3ad lacp_rate fast
ip link add link vd name mv0 type macvlan mode bridge
ip link add ifb0 numtxqueues 2 type ifb
ip link set vb alias uplink txqueuelen 200 group 7 allmulticast on
ip link property add dev vb altname uplink0
ip link set va up
ip link set vb up
ip link set vd up
ip addr add 10.0.0.1/24 dev br0
ip addr add 10.0.1.1/24 dev vb
ip -6 addr add 2001:db8::1/64 dev br0 nodad
ip route add 10.1.0.0/16 via 10.0.0.2 dev br0 metric 5
ip route add 10.2.0.0/16 dev vb scope link
ip route add 10.7.0.0/16 encap ip id 30 dst 10.0.0.9 dev br0
ip route add 10.3.0.0/16 nexthop via 10.0.0.3 dev br0 nexthop via 10.0.1.3 dev vb
ip route add 10.4.0.0/16 via 10.0.1.2 dev vb mtu 1300
ip route add 10.5.0.0/16 via 192.0.2.1 dev vb table 100 onlink
ip route add blackhole 10.6.0.0/16 metric 9
ip -6 route add 2001:db8:1::/48 via 2001:db8::2 dev br0 pref high
ip nexthop add id 7 via 10.0.1.9 dev vb
ip route add 10.8.0.0/16 nhid 7
ip rule add iif vb fwmark 3 table 100 priority 60
bridge vlan add dev va vid 20
bridge vlan add dev vc vid 30
bridge fdb append 00:00:00:00:00:00 dev vx10 dst 10.9.0.1
bridge fdb add 02:00:00:00:00:09 dev va master static
bridge mdb add dev br0 port va grp 239.1.1.1 permanent
ip neigh add 10.0.0.7 lladdr 02:00:00:00:00:07 dev br0
ip neigh add proxy 10.0.0.50 dev br0
ip addrlabel add prefix 2001:db8:3::/48 label 40
tc qdisc add dev va root pfifo limit 500
tc qdisc add dev vb root handle 1: htb default 10
tc class add dev vb parent 1: classid 1:10 htb rate 10mbit
tc filter add dev vb parent 1: protocol ip prio 5 u32 match ip dst 10.4.0.0/16 flowid 1:10
tc qdisc add dev vd ingress
tc filter add dev vd ingress protocol all prio 1 u32 match u32 0 0 action mirred egress mirror dev vc
