from stateflow import entity


@entity
class Account:
    def __init__(self, name: str, cents: int):
        self.name: str = name
        self.cents: int = cents

    def __key__(self) -> str:
        return self.name

    def balance(self) -> int:
        return self.cents

    def deposit(self, cents: int) -> int:
        assert cents > 0, "nothing to put"
        self.cents += cents
        return self.cents

    def transfer(self, cents: int, to: 'Account') -> int:
        if self.cents < cents:
            raise ValueError("not enough money")
        to.deposit(cents)
        self.cents -= cents
        return self.cents
