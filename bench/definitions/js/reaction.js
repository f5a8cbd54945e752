// What a monitor does at an input. The entries that are shared are computed only for the message that asks for them.
function mon_msg__Protocol__Reaction__reaction(me, now, store, state, came) {
  const asks = came.name === 'Deliver' && came.args[0].body.name === 'GetChunk';
  const shared = asks ? mon_msg__Protocol__Readings__shared_entries(store) : [], readings = mon_msg__Protocol__Readings__readings_of(store);
  return mon_msg__Protocol__Reaction__any_reaction(mon_msg__Protocol__Table__react(me, shared, now, readings, state, came));
}
