"""What memory a process takes, in bytes, as Linux tells."""


def told(pid, what):
    with open("/proc/%d/status" % pid) as status:
        for line in status:
            if line.startswith(what + ":"):
                return int(line.split()[1]) * 1024
    raise ProcessLookupError(pid)


def peak(pid):
    """The most memory that was resident so far."""
    return told(pid, "VmHWM")


def now(pid):
    """The memory that is resident."""
    return told(pid, "VmRSS")
