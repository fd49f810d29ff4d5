"""Quick fixes: what the sentences of faults and hints name."""
