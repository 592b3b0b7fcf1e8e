"""From an API server's audit log to the text of a trace: what tools/from-audit-log is made of."""
