"""What this machine can do at a time."""
import os

# What a proof may take of memory.
PROOF = 5 << 30


def proofs_at_once():
    """As many as there are processors, and as memory holds. RT_JOBS says otherwise."""
    said = os.environ.get("RT_JOBS", "")
    memory = os.sysconf("SC_PHYS_PAGES") * os.sysconf("SC_PAGE_SIZE")
    return int(said) if said.isdigit() and int(said) else max(1, min(len(os.sched_getaffinity(0)), memory // PROOF))
