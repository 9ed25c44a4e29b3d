from stateflow import entity
@entity
class Counter:
    def __init__(self, k: str, n: int):
        self.k: str = k
        self.n: int = n
    def __key__(self) -> str:
        return self.k
    def add(self, d: int) -> int:
        self.n = self.n + d
        return self.n
