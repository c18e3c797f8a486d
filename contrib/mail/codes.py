"""Diagnostics of X.411 as status codes of mail (RFC 3463), and the way back."""
import re

# by the numbers of X.411; those above 31 are of paper (5.1.2) up to 45, and then mostly of security
STATUS_CODES = {0: "5.1.1", 1: "5.1.4", 2: "5.4.5", 3: "5.4.6", 4: "5.2.1", 5: "5.4.7", 6: "5.6.1", 7: "5.3.4",
    8: "5.6.3", 9: "5.6.2", 10: "5.6.3", 11: "5.5.4", 12: "5.6.0", 13: "5.5.2", 14: "5.5.0", 15: "5.6.1",
    16: "5.5.3", 17: "5.4.4", 18: "5.6.1", 19: "5.6.2", 20: "5.6.0", 21: "5.6.0", 22: "5.6.4", 23: "5.6.4",
    24: "5.6.4", 25: "5.6.4", 26: "5.7.1", 27: "5.4.6", 28: "5.7.2", 29: "5.7.2", 30: "5.2.4", 31: "5.2.0"}
OF_PAPER, OF_SECURITY = range(32, 46), range(46, 79)
UNKNOWN = "5.0.0"
# beginnings of status codes, and the reason and diagnostic that they are; the first one that fits
OF_STATUS = (("1.4", 1, 1), ("1.", 1, 0), ("2.3", 1, 7), ("2.4", 1, 30), ("2.", 1, 4), ("3.4", 1, 7), ("4.6", 0, 3),
             ("4.7", 0, 5), ("5.3", 1, 16), ("6.", 1, 12), ("7.", 1, 17))
OTHERWISE = (0, None)


def status_of(diagnostic):
    """The status code of a diagnostic, which may be none."""
    if diagnostic in OF_PAPER or diagnostic in OF_SECURITY:
        return "5.1.2" if diagnostic in OF_PAPER else "5.7.0"
    return STATUS_CODES.get(diagnostic, UNKNOWN)


def reason_of(status):
    """The reason and the diagnostic of a status code."""
    found = re.match(r"[245]\.(\d{1,3}\.\d{1,3})", status)
    return next(((reason, diagnostic) for begin, reason, diagnostic in OF_STATUS
                 if found and found[1].startswith(begin)), OTHERWISE)
