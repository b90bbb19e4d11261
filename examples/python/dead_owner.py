"""A child is killed between a count and its copy; its parent repairs the copy. python3 dead_owner.py FILE"""
import os
import signal
import sys

import pazdrig

with pazdrig.File(sys.argv[1], data=16) as file:
    count = file.data.cast("q")

    def repair():
        print(f"repaired: {count[0]} and {count[1]}")
        count[1] = count[0]

    mutex = file.mutex(0, repair)
    reader, writer = os.pipe()
    if (child := os.fork()) == 0:
        with mutex:
            count[0] += 1
            os.write(writer, b"!")
            signal.pause()
            count[1] += 1
    os.read(reader, 1)
    os.kill(child, signal.SIGKILL)
    with mutex:
        print(f"{count[0]} and {count[1]}")
