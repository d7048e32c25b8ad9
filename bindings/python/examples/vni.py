"""Whether a file has a request that creates a vxlan with the VNI 10, and the attributes of the link vx0 in it."""
import sys

import linkcap

NLM_F_CREATE = 0x400

with open(sys.argv[1], "rb") as file:
    capture = file.read()

vni = "IFLA_LINKINFO > IFLA_INFO_DATA > IFLA_VXLAN_ID"
print(any(a.path == vni and a.value == "10" and a.message.flags & NLM_F_CREATE
          for a in linkcap.attributes(capture, only=["newlink"])))

for a in linkcap.attributes(capture, link="vx0"):
    if a.value:
        print(a.path, a.value)
