"""What cvr-audit is made of: a module for each command, and those that they share."""

VERSION = '1.4.0'
