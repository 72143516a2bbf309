"""How many bytes a page has, in which many systems keep what pipes and files hold."""

import os

# The sizes that are looked for where a system is not known, and that of the system at hand.
SIZES = (4_096, 8_192, 16_384, 32_768, 65_536)
OF_SYSTEM = os.sysconf("SC_PAGE_SIZE")
