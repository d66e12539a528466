"""What make installs and packs, tried in folders of their own."""
