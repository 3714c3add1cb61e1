"""Asks a running group from Python, as any program may (clients/python).
  ./nozhgiva cluster -- env PYTHONPATH=clients/python/src python3 examples/hello.py     of a group that runs meanwhile
  python3 examples/hello.py GROUP ADDRESS ..                                            of the group of this number: the addresses of all members"""

import os
import sys

from nozhgiva import Group

number, *addresses = sys.argv[1:] or [os.environ["NOZHGIVA_GROUP"], *os.environ["NOZHGIVA_ADDRS"].split()]
group = Group(int(number), addresses)
with group.register() as session:
    session.put("color", "green")
    print("color is", session.get("color"))
    session.delete("color")
    print("color is", session.get("color"))
