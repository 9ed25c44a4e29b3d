"""How marked classes act as the service does: the world of entities, counted code, and classes that act."""
