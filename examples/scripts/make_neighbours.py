# Writes neighbours.json into this folder: a scene of 1,024 devices with neighbouring UIDs, whose collisions spell
# nobody.
import json

devices = [{"uid": "0000:%08x" % number} for number in range(1024)]
scene = {"source": "7a70:00000100", "collisions": [{"bytes": "ff"}], "devices": devices}
with open("neighbours.json", "w") as file:
    json.dump(scene, file, separators=(",", ":"))
    file.write("\n")
