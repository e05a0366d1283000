"""The tests of the planner's command; ./test_planner.sh runs them."""
