"""What the tests of the tools share: runs made up by the rules of the formats, and pages read back."""
