"""The planner's command over the compiled Rattle program that answers every call; docs/PLANNER.md."""
