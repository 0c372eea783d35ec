"""densfill-array: a chip in parts, by the jobs of a batch system (docs/CLUSTER.md)."""
