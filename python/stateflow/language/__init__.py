"""The language of programs: its tokens, its grammar, its rules, and each fault in words."""
