"""The page of a run: what it tells (facts), its charts, and the page itself by templates."""
