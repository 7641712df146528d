"""What is answered where a request isn't done: a status of HTTP, and one sentence that says what to do."""


class Refusal(Exception):
    """Why a request isn't done."""

    def __init__(self, status, sentence, **headers):
        super().__init__(sentence)
        self.status, self.sentence, self.headers = status, sentence, headers
