"""The messages of etcd's v3 API that the gateway reads and writes, from their public names and field numbers, and their JSON form.

Each message is a text of fields `TYPE NAME NUMBER`, with `*` before the type of a repeated one, and `?` before that of a choice, of which one is set.
A message that is always refused, such as a transaction, isn't read and isn't here.
"""
from __future__ import annotations

from typing import Any

from google.protobuf import descriptor_pb2, descriptor_pool, json_format, message_factory  # type: ignore[import]

ENUMS = {
    'mvccpb.Event.EventType': 'PUT DELETE',
    'etcdserverpb.RangeRequest.SortOrder': 'NONE ASCEND DESCEND',
    'etcdserverpb.RangeRequest.SortTarget': 'KEY VERSION CREATE MOD VALUE',
    'etcdserverpb.WatchCreateRequest.FilterType': 'NOPUT NODELETE',
    'etcdserverpb.AlarmRequest.AlarmAction': 'GET ACTIVATE DEACTIVATE',
    'etcdserverpb.AlarmType': 'NONE NOSPACE CORRUPT',
}
MESSAGES = {
    'mvccpb.KeyValue': 'bytes key 1, int64 create_revision 2, int64 mod_revision 3, int64 version 4, bytes value 5, int64 lease 6',
    'mvccpb.Event': 'mvccpb.Event.EventType type 1, mvccpb.KeyValue kv 2, mvccpb.KeyValue prev_kv 3',
    'etcdserverpb.ResponseHeader': 'uint64 cluster_id 1, uint64 member_id 2, int64 revision 3, uint64 raft_term 4',
    'etcdserverpb.RangeRequest':
        'bytes key 1, bytes range_end 2, int64 limit 3, int64 revision 4, etcdserverpb.RangeRequest.SortOrder sort_order 5, '
        'etcdserverpb.RangeRequest.SortTarget sort_target 6, bool serializable 7, bool keys_only 8, bool count_only 9, int64 min_mod_revision 10, '
        'int64 max_mod_revision 11, int64 min_create_revision 12, int64 max_create_revision 13',
    'etcdserverpb.RangeResponse': 'etcdserverpb.ResponseHeader header 1, *mvccpb.KeyValue kvs 2, bool more 3, int64 count 4',
    'etcdserverpb.PutRequest': 'bytes key 1, bytes value 2, int64 lease 3, bool prev_kv 4, bool ignore_value 5, bool ignore_lease 6',
    'etcdserverpb.PutResponse': 'etcdserverpb.ResponseHeader header 1, mvccpb.KeyValue prev_kv 2',
    'etcdserverpb.DeleteRangeRequest': 'bytes key 1, bytes range_end 2, bool prev_kv 3',
    'etcdserverpb.DeleteRangeResponse': 'etcdserverpb.ResponseHeader header 1, int64 deleted 2, *mvccpb.KeyValue prev_kvs 3',
    'etcdserverpb.WatchCreateRequest':
        'bytes key 1, bytes range_end 2, int64 start_revision 3, bool progress_notify 4, *etcdserverpb.WatchCreateRequest.FilterType filters 5, '
        'bool prev_kv 6, int64 watch_id 7, bool fragment 8',
    'etcdserverpb.WatchCancelRequest': 'int64 watch_id 1',
    'etcdserverpb.WatchProgressRequest': '',
    'etcdserverpb.WatchRequest':
        '?etcdserverpb.WatchCreateRequest create_request 1, ?etcdserverpb.WatchCancelRequest cancel_request 2, '
        '?etcdserverpb.WatchProgressRequest progress_request 3',
    'etcdserverpb.WatchResponse':
        'etcdserverpb.ResponseHeader header 1, int64 watch_id 2, bool created 3, bool canceled 4, int64 compact_revision 5, string cancel_reason 6, '
        'bool fragment 7, *mvccpb.Event events 11',
    'etcdserverpb.Member': 'uint64 ID 1, string name 2, *string peerURLs 3, *string clientURLs 4, bool isLearner 5',
    'etcdserverpb.MemberListRequest': 'bool linearizable 1',
    'etcdserverpb.MemberListResponse': 'etcdserverpb.ResponseHeader header 1, *etcdserverpb.Member members 2',
    'etcdserverpb.StatusRequest': '',
    'etcdserverpb.StatusResponse':
        'etcdserverpb.ResponseHeader header 1, string version 2, int64 dbSize 3, uint64 leader 4, uint64 raftIndex 5, uint64 raftTerm 6, '
        'uint64 raftAppliedIndex 7, *string errors 8, int64 dbSizeInUse 9, bool isLearner 10',
    'etcdserverpb.AlarmRequest': 'etcdserverpb.AlarmRequest.AlarmAction action 1, uint64 memberID 2, etcdserverpb.AlarmType alarm 3',
    'etcdserverpb.AlarmMember': 'uint64 memberID 1, etcdserverpb.AlarmType alarm 2',
    'etcdserverpb.AlarmResponse': 'etcdserverpb.ResponseHeader header 1, *etcdserverpb.AlarmMember alarms 2',
    'etcdserverpb.AuthenticateRequest': 'string name 1, string password 2',
    'etcdserverpb.AuthenticateResponse': 'etcdserverpb.ResponseHeader header 1, string token 2',
}
Field = descriptor_pb2.FieldDescriptorProto


def add_field(message: Any, text: str) -> None:
    kind, name, number = text.split()
    field = message.field.add(name=name, number=int(number))
    field.label = Field.LABEL_REPEATED if kind.startswith('*') else Field.LABEL_OPTIONAL
    if kind.startswith('?'):
        field.oneof_index = 0
        if not message.oneof_decl:
            message.oneof_decl.add(name='request_union')
    kind = kind.lstrip('*?')
    if '.' in kind:
        field.type, field.type_name = Field.TYPE_ENUM if kind in ENUMS else Field.TYPE_MESSAGE, f'.{kind}'
    else:
        field.type = Field.Type.Value(f'TYPE_{kind.upper()}')


def file_of(package: str) -> Any:
    """The description of a package's messages and enums, as a compiler of such files would make it."""
    file = descriptor_pb2.FileDescriptorProto(name=f'{package}.proto', package=package, syntax='proto3')
    if package != 'mvccpb':
        file.dependency.append('mvccpb.proto')
    parts = {}
    for name, text in MESSAGES.items():
        if name.startswith(f'{package}.'):
            parts[name] = file.message_type.add(name=name.split('.')[-1])
            for field in filter(None, text.split(', ')):
                add_field(parts[name], field)
    for name, text in ENUMS.items():
        if name.startswith(f'{package}.'):
            enum = parts.get(name.rpartition('.')[0], file).enum_type.add(name=name.split('.')[-1])
            for number, value in enumerate(text.split()):
                enum.value.add(name=value, number=number)
    return file


def classes() -> dict[str, Any]:
    """The class of each message, by the last part of its name."""
    pool = descriptor_pool.DescriptorPool()
    for package in ('mvccpb', 'etcdserverpb'):
        pool.Add(file_of(package))
    # Older releases of protobuf have a factory instead of the function.
    class_of = getattr(message_factory, 'GetMessageClass', None) or message_factory.MessageFactory(pool).GetPrototype
    return {name.split('.')[-1]: class_of(pool.FindMessageTypeByName(name)) for name in MESSAGES}


CLASSES = classes()


def new(kind: str, /, **fields: Any) -> Any:
    """A message of this kind with these fields."""
    return CLASSES[kind](**fields)


def from_json(name: str, text: bytes) -> Any:
    """The message of this name that a JSON text has. Raises ValueError if it has none."""
    try:
        return json_format.Parse(text.decode('utf-8') or '{}', new(name))
    except (json_format.ParseError, RecursionError) as why:
        raise ValueError(f'no {name} in JSON: {why}') from None


def to_json(message: Any) -> str:
    """A message as one line of JSON, with the names of its fields as etcd writes them: bytes are base64, and long numbers are texts."""
    return str(json_format.MessageToJson(message, preserving_proto_field_name=True, indent=None))
