"""Growths of a site: readers of sites and maps that know lines, and the steps by which a site grows."""
