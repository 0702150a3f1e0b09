import os

os.rename('t/metadata/v1.metadata.json', 't/metadata/v2147483648.metadata.json')
