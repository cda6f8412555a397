"""The parts of tools/from-yaml, which turns Ansible's YAML and INI into the JSON of pb-play."""
