"""Asks a served desk for everything that its contract has, and holds the answers to it: python3 contract.py ADDRESS [FILE].

Every path is asked, every parameter of a query is given, every field of every answer is met, and whatever comes back validates. The desk is served
from examples/named.txt, with the accounts anna (a clerk), revision (reads) and router (speaks for everyone) named in X-Account. With FILE, that contract is taken in the place of
the one that the desk tells.
"""
import json
import sys
import urllib.error
import urllib.parse
import urllib.request

from jsonschema import Draft202012Validator

BASE = 'http://' + sys.argv[1]
DESK = '/v1/desks/desk'

# What takes a failing disk, a clock that is set, a second server or a moved desk to be met.
NOT_MET = {'Told.not_done', 'Health.desks.*.elsewhere', 'Row.clock', 'Row.clock.after', 'Row.clock.expected', 'Row.clock.found', 'Board.refusals[].time', 'Row.moved_from', 'Row.moved_from.number', 'Row.moved_from.at',
           'Row.moved_from.time', 'Row.moved_from.account', 'Row.moved_from.opening', 'Decision.context.error.pointer'}


def call(method, path, account='router', body=None, accept=None, kind='application/json'):
    headers = {'X-Account': account, 'Host': 'localhost'}
    if accept:
        headers['Accept'] = accept
    data = None
    if body is not None:
        headers['Content-Type'] = kind
        data = body.encode() if isinstance(body, str) else json.dumps(body).encode()
    request = urllib.request.Request(BASE + path, data, headers, method=method)
    try:
        reply = urllib.request.urlopen(request, timeout=60)
    except urllib.error.HTTPError as failed:
        reply = failed
    with reply:
        return reply.status, reply.headers.get_content_type(), reply.read().decode()


DOC = json.load(open(sys.argv[2])) if len(sys.argv) > 2 else json.loads(call('GET', '/openapi.json')[2])
SCHEMAS = DOC['components']['schemas']
met, asked, queried, problems = set(), set(), set(), []


def resolved(part):
    while '$ref' in part:
        part_of = DOC
        for word in part['$ref'].split('/')[1:]:
            part_of = part_of[word]
        part = part_of
    return part


def validator(schema):
    return Draft202012Validator({**schema, 'components': DOC['components']})


def meet(schema, value, name):
    """Notes which fields of a schema a value has."""
    if '$ref' in schema:
        name = schema['$ref'].split('/')[-1]
        schema = resolved(schema)
    for one in schema.get('oneOf', []):
        if validator(one).is_valid(value):
            meet(one, value, name)
            return
    if isinstance(value, list) and 'items' in schema:
        for one in value:
            meet(schema['items'], one, name + '[]')
    if isinstance(value, dict):
        for field, part in schema.get('properties', {}).items():
            if field in value:
                met.add(f'{name}.{field}')
                meet(part, value[field], f'{name}.{field}')
        if isinstance(schema.get('additionalProperties'), dict):
            for field in value:
                if field not in schema.get('properties', {}):
                    meet(schema['additionalProperties'], value[field], f'{name}.*')


def fields(schema, name, seen=()):
    """Every field that a schema has."""
    if '$ref' in schema:
        name = schema['$ref'].split('/')[-1]
        if name in seen:
            return
        seen = (*seen, name)
        schema = resolved(schema)
    for one in schema.get('oneOf', []):
        yield from fields(one, name, seen)
    if 'items' in schema:
        yield from fields(schema['items'], name + '[]', seen)
    for field, part in schema.get('properties', {}).items():
        yield f'{name}.{field}'
        yield from fields(part, f'{name}.{field}', seen)
    if isinstance(schema.get('additionalProperties'), dict):
        yield from fields(schema['additionalProperties'], name + '.*', seen)


def check(path, method, expected=200, account='router', body=None, query=None, accept=None, lines=False, **words):
    """Asks, and holds the answer to what the contract says of this path and status."""
    asked.add((path, method))
    told = DOC['paths'][path][method]
    target = path
    for name, value in words.items():
        target = target.replace('{' + name + '}', urllib.parse.quote(value, safe=''))
    if query:
        names = {one['name'] for one in told['parameters'] if one['in'] == 'query'}
        assert set(query) <= names, f'{path}: {set(query) - names} is not in the contract'
        queried.update((path, name) for name in query)
        target += '?' + urllib.parse.urlencode(query)
    if isinstance(body, dict) and expected == 200:
        schema = told['requestBody']['content']['application/json']['schema']
        validator(schema).validate(body)
    kind = 'text/plain' if lines else 'application/json'
    status, kind, text = call(method.upper(), target, account, body, accept, kind)
    where = f'{method.upper()} {target}: {status}'
    assert status == expected, f'{where}, expected {expected}: {text[:300]}'
    responses = told['responses']
    response = resolved(responses.get(str(status)) or responses[f'{status // 100}XX'])
    content = response['content'].get(kind)
    assert content, f'{where}: {kind} is not in the contract'
    if 'json' not in kind:
        return text
    values = [json.loads(line) for line in text.splitlines()] if 'ndjson' in kind else [json.loads(text)]
    for value in values:
        errors = sorted(validator(content['schema']).iter_errors(value), key=str)
        problems.extend(f'{where}: {"/".join(map(str, e.absolute_path))}: {e.message[:200]}' for e in errors)
        meet(content['schema'], value, path)
    return values[0] if values else None


def ask_everything():
    requests = '/v1/desks/{desk}/requests'

    def send(body, **how):
        return check(requests, 'post', desk='desk', body=body, **how)

    send({'request': 'create subject am for user anna with roles fitter', 'id': 7, 'key': 'one'})
    send({'requests': ['create subject 2 for user bert with roles tester', {'request': 'open order mill of template breakdown', 'id': 'x'},
                       {'record': '3200000000000000', 'key': 'two'}, 'claim am mill repair', 'done am mill repair', 'entries of order mill', 'clam', {'record': '32'},
                       'claim am mill test', 'claim 2 mill test', 'open order 8 of template breakdown', 'claim am 8 repair', 'done am 8 repair', 'claim am 8 sign']},
         query={'why': '1'})
    send('end order 63\ncreate subject 9 for user bert with roles fitter\ncreate subject 10 for user clara with roles signer\nclaim 10 mill sign\n', lines=True, account='router')
    send({'requests': [{'request': 'add user 900', 'id': 1}, {'request': 'nonsense', 'id': 2}]}, account='anna')
    send({'request': 7}, expected=400)
    send({'request': 'add user 9'}, expected=403, account='anna')
    send('{', expected=400, lines=False)
    for path in ('/', '/healthz', '/readyz', '/metrics', '/openapi.json', '/.well-known/authzen-configuration'):
        check(path, 'get')
    check('/.well-known/authzen-configuration/v1/desks/{desk}', 'get', desk='desk')
    check('/v1/desks', 'get')
    check('/v1/desks', 'get', account='mallory', expected=403)
    of = '/v1/desks/{desk}'
    for account in ('anna', 'revision', 'router'):
        check(of + '/board', 'get', desk='desk', account=account)
    check(of + '/board', 'get', desk='nowhere', expected=404)
    check(of + '/finish', 'get', desk='desk')
    check(of + '/finish', 'get', desk='desk', query={'with': 'anna,bert'})
    check(of + '/orders/{order}/finish', 'get', desk='desk', order='mill')
    check(of + '/orders/{order}/finish', 'get', desk='desk', order='mill', query={'with': 'anna,bert,clara,fritz,hans'})
    check(of + '/orders/{order}/finish', 'get', desk='desk', order='nix', expected=404)
    for task in ('sign', 'repair'):
        check(of + '/orders/{order}/tasks/{task}/who', 'get', desk='desk', order='8', task=task)
    holds = {'from': 'repair', 'to': 'test', 'end': 'claim', 'by': 'shift', 'shifts': 'day 06:00-18:00, night 18:00-06:00', 'zone': '+01:00',
             'since': '2020-01-01', 'until': '2100-01-01', 'worst': '3', 'panels': 'periods,worst', 'title': 'T', 'top': '2'}
    for accept in ('application/json', 'text/csv', 'image/svg+xml'):
        check(of + '/holds', 'get', desk='desk', query=holds, accept=accept)
    check(of + '/holds', 'get', desk='desk', query={'from': 'repair'}, expected=400)
    check(of + '/holds', 'get', desk='desk', query=holds, account='anna', expected=403)
    check(of + '/journal', 'get', desk='desk')
    for query in ({'barred': '1'}, {'order': 'mill', 'task': 'sign', 'reply': 'refused'}, {'user': 'anna', 'account': 'router', 'last': '2'},
                  {'since': '2020-01-01', 'until': '2100-01-01', 'opening': '3'}):
        check(of + '/journal', 'get', desk='desk', query=query)
    for before, words in (('', {}), (of, {'desk': 'desk'})):
        authzen(before + '/access/v1', words)
    # Events go on for ever: what they are is tried elsewhere.
    asked.add((of + '/events', 'get'))
    assert call('HEAD', DESK + '/events')[:2] == (200, 'text/event-stream')


def authzen(path, words):
    one = {'subject': {'type': 'user', 'id': 'anna'}, 'action': {'name': 'claim'}, 'resource': {'type': 'task', 'id': 'mill/sign'}, 'context': {}}
    check(path + '/evaluation', 'post', body=one, **words)
    check(path + '/evaluation', 'post', body={**one, 'resource': {'type': 'object', 'id': 'log', 'properties': {'task': 'mill/test'}},
                                             'action': {'name': 'check', 'properties': {'operation': 'read'}}}, **words)
    signs = {'subject': {'type': 'user', 'id': 'clara'}, 'action': {'name': 'claim'}, 'resource': {'type': 'task', 'id': 'mill/sign'}}
    check(path + '/evaluation', 'post', body=signs, **words)
    check(path + '/evaluation', 'post', body={}, expected=400, **words)
    check(path + '/evaluations', 'post', body={**one, 'evaluations': [{}, {'action': {'name': 'done'}}], 'options': {'evaluations_semantic': 'execute_all'}}, **words)
    check(path + '/evaluations', 'post', body={'subject': {'type': 'user', 'id': 'bert'}, 'evaluations': [{'action': {'name': 'claim'}, 'resource': {'type': 'task', 'id': 'mill/sign'}}]},
          account='anna', **words)
    check(path + '/search/subject', 'post', body={**one, 'subject': {'type': 'user'}, 'resource': {'type': 'task', 'id': '8/repair'}}, **words)
    check(path + '/search/subject', 'post', body={**one, 'subject': {'type': 'user'}, 'resource': {'type': 'object', 'id': 'log'}, 'action': {'name': 'read'}}, **words)
    check(path + '/search/resource', 'post', body={**one, 'subject': {'type': 'user', 'id': 'bert'}, 'resource': {'type': 'object'}, 'action': {'name': 'read'}}, **words)
    check(path + '/search/action', 'post', body={'subject': {'type': 'subject', 'id': '2'}, 'resource': {'type': 'object', 'id': 'log'}}, **words)


def main():
    Draft202012Validator.check_schema({'$defs': SCHEMAS})
    ask_everything()
    everything = {(path, method) for path, methods in DOC['paths'].items() for method in methods}
    problems.extend(f'never asked: {method} {path}' for path, method in sorted(everything - asked))
    names = {(path, one['name']) for path, methods in DOC['paths'].items() for m in methods.values() for one in m['parameters'] if one['in'] == 'query'}
    problems.extend(f'never given: {name} of {path}' for path, name in sorted(names - queried))
    wanted = set()
    for path, methods in DOC['paths'].items():
        for told in methods.values():
            for response in told['responses'].values():
                for kind, content in resolved(response).get('content', {}).items():
                    if 'json' in kind:
                        wanted.update(fields(content['schema'], path))
    problems.extend(f'never met: {field}' for field in sorted(wanted - met - NOT_MET))
    print('\n'.join(problems) or f'contract: {len(everything)} calls asked, {len(met)} fields met, all as they should be')
    return 1 if problems else 0


if __name__ == '__main__':
    sys.exit(main())
