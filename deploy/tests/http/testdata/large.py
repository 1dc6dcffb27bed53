"""Sends a file in one piece, as http.client does, and with requests where that is there, and prints the status of each answer."""
import http.client
import sys

HOST, PATH, TOKEN, FILE = sys.argv[1:]
HEADERS = {"Authorization": "Bearer " + TOKEN}
with open(FILE, "rb") as file:
    BODY = file.read()
connection = http.client.HTTPConnection(HOST)
connection.request("PUT", PATH, BODY, HEADERS)
print(connection.getresponse().status)
try:
    import requests
except ImportError:
    sys.exit()
print(requests.put(f"http://{HOST}{PATH}", BODY, headers=HEADERS, timeout=60).status_code)
