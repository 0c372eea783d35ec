"""A deck of all layers of a design, run with densfill, and what people look at afterwards."""
