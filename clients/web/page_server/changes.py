"""Which series changed, for those who wait for it."""
import threading

from zurtkvani_client.page_rules import Latest


class Changes(Latest):
    def __init__(self):
        super().__init__()
        self.news = threading.Condition()

    def tell(self, series):
        with self.news:
            self.note(series)
            self.news.notify_all()

    def since(self, seen, patience):
        """The number of changes, and the series that changed behind the first `seen`; waits so many seconds for one."""
        with self.news:
            self.news.wait_for(lambda: self.count > seen, patience)
            return self.count, self.behind(seen)
