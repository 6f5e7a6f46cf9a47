"""Forms over stops of the front and of moo, which are processes: nothing that was typed is lost, and nothing is done twice."""

import http.client
import unittest

from tests.support.operating import KeptService
from tests.support.with_front import WithFront


class Stops(WithFront):
    def test_of_moo(self):
        ada = self.reader("ada")
        ada.get("/do/rename?object=%238")
        port = self.moo.port
        self.moo.stop()
        page = ada.send("Preview", name="Oil lamp")
        self.has(page, "The world didn’t answer in time", status=503)
        self.assertEqual(ada.typed()["name"], "Oil lamp")
        self.moo = KeptService(self.room / "world.db", port=port)
        self.has(ada.send("Preview"), "Lamp #8 is called “Oil lamp”.", status=200)
        self.moo.stop()
        self.has(ada.send("Do it"), "nothing was sent to it", status=503)
        self.moo = KeptService(self.room / "world.db", port=port)
        self.has(ada.send("Try again"), "Done batch 2", status=200)

    def test_of_the_front_between_the_preview_and_the_end(self):
        ada = self.reader("ada")
        ada.get("/do/create?parent=%236")
        preview = ada.send("Preview", names="Key")
        self.start_again()
        self.has(ada.send("Do it"), "Made: Key #9", status=200)
        self.start_again()
        ada.page = preview
        self.has(ada.send("Do it"), "This was done already", status=200)
        self.assertEqual([ada.get("/o/9").status, ada.get("/o/10").status], [200, 404])

    def test_a_stranger_who_wrote(self):
        ada = self.reader("ada")
        ada.get("/do/rename?object=%238")
        ada.send("Preview", name="Oil lamp")
        connection = http.client.HTTPConnection("127.0.0.1", self.moo.port)
        connection.request("POST", "/batch", '{"as":"#3","calls":["max_object()"]}')
        self.assertEqual(connection.getresponse().status, 200)
        connection.close()
        page = ada.send("Do it")
        self.has(page, "an operator has to look at it", status=503)
        self.assertEqual(ada.typed()["name"], "Oil lamp")
        self.assertIn("somebody else wrote", self.front.said())


if __name__ == "__main__":
    unittest.main()
