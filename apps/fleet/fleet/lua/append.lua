-- A host appends bytes, or a change of the size, as 120x40: INCARNATION HOST BEFORE POSITION VERSION MOMENT FIELD(bytes|screen) VALUE
-- ok; closed, lost, taken; back, with the end there; or other (another entry is there).
local inc, before, at, what, value = ARGV[1], tonumber(ARGV[3]), tonumber(ARGV[4]), ARGV[7], ARGV[8]
local there, answer = place_of(inc, ARGV[2])
if not there then return answer end
if there >= at then
  local entry = redis.call('XRANGE', key(inc, 'bytes'), ARGV[4] .. '-0', ARGV[4] .. '-0')[1]
  if entry and entry[2][5] == what and entry[2][6] == value then return {'ok'} end
  return {'other'}
end
if there ~= before then return {'back', answer} end
local more = {}
if what == 'screen' then
  local size = redis.call('HMGET', key(inc, 'about'), 'resized', 'screen')
  more = {'before', size[1] or size[2]}
end
local added = redis.pcall('XADD', key(inc, 'bytes'), 'NOMKSTREAM', ARGV[4] .. '-0', 'v', ARGV[5], 't', ARGV[6], what, value, unpack(more))
if not added then return {'lost'} end
if added.err then
  if string.find(added.err, 'equal or smaller') then return {'other'} end
  return added
end
redis.call('HSET', key(inc, 'about'), 'end', ARGV[4], 'seen', ARGV[6])
if what == 'screen' then redis.call('HSET', key(inc, 'about'), 'resized', value) end
return {'ok'}
