import tables

tables.change('t/metadata/v1.metadata.json', lambda metadata: metadata['schemas'][0]['fields'][1].update({'type': 'int'}))
