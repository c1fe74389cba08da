"""Parts of `./check` that it starts by its words."""
