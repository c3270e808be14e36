"""Reads a JMeter .jmx and writes the plan that the engine reads; tools/jmx2plan is its command."""
