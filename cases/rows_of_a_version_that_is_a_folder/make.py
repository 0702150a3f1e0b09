import os

os.remove("t/metadata/v1.metadata.json")
os.mkdir("t/metadata/v1.metadata.json")
