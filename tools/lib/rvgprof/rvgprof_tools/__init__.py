"""What the tools of rvgprof share."""
