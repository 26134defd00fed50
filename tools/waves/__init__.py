"""What `tools/wave` is made of: listings and captures are read, dumps and pages are written."""
