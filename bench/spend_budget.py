#!/usr/bin/env python3
"""Times `cypress synth` on a flat text of twelve parameters and sixteen cells a side that spends the
whole budget of 20,000 expansions. Give the path of the built program; it prints seconds and megabytes."""
import resource
import subprocess
import sys
import time

params = ["p%d" % i for i in range(12)]
pre = ["%s :-> %d" % (p, i) for i, p in enumerate(params)] + ["q%d :-> %d" % (i, 20 + i) for i in range(4)]
post = ["e%d :-> f%d" % (i, i) for i in range(7)] + ["p%d :-> %d" % (i, i) for i in range(8)] + ["g :-> 99"]
text = "void f(%s) { %s } { %s }" % (", ".join("loc " + p for p in params), " ** ".join(pre), " ** ".join(post))
begin = time.time()
done = subprocess.run([sys.argv[1], "synth"], input=text.encode(), capture_output=True)
seconds = time.time() - begin
megabytes = resource.getrusage(resource.RUSAGE_CHILDREN).ru_maxrss // 1024
print("%s %d: %.1f s, %d MB" % (done.stdout.decode().strip(), done.returncode, seconds, megabytes))
