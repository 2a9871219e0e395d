"""Whether a program of Python takes more memory the longer it runs."""

# Behind a function `turn`: writes by how many kibibytes the most memory grew between some hundreds
# of turns and some thousands, where it is more than what an allocator may keep, else an empty line.
MEASURED = """
import resource

def peak(turns):
    for _ in range(turns):
        turn()
    return resource.getrusage(resource.RUSAGE_SELF).ru_maxrss

before = peak(500)
grown = peak(3000) - before
print(grown if grown > 2000 else "")
"""
