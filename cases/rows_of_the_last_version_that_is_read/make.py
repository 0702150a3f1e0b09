import os

os.rename('t/metadata/v1.metadata.json', 't/metadata/v2147483647.metadata.json')
