"""full_mesh.py ROUTERS [INTERFACES [LOSS]]: settings of a minute of routers of so many interfaces that all hear each other at metric 1.

An arc leads from each interface to the one of the same place at each other router, and loses LOSS of 1,000 frames."""
import sys

count = int(sys.argv[1])
faces = int(sys.argv[2]) if len(sys.argv) > 2 else 1
loss = int(sys.argv[3]) if len(sys.argv) > 3 else 0
print("end_ms = 60000\nseed = 1")
for x in range(count):
    print(f'[[router]]\nname = "r{x}"')
    for i in range(faces):
        n = x * faces + i
        print(f'[[router.interface]]\nname = "w{i}"\naddresses = ["10.0.{n // 250}.{n % 250 + 1}"]')
for x in range(count):
    for y in range(count):
        for i in range(faces if x != y else 0):
            print(f'[[arc]]\nfrom = "r{x}.w{i}"\nto = "r{y}.w{i}"\nmetric = 1' + (f"\nloss = {loss}" if loss else ""))
