"""Tests of the page (docs/play) in a headless Chromium; .ci/browser runs them."""
