-- Looks after sessions, some at a time: CURSOR COUNT RETAIN(ms, -1 for ever) VERSION
-- One whose host has been silent for RETAIN is closed as lost. One whose keys are gone is forgotten. Returns the next cursor.
local retain = tonumber(ARGV[3])

local function look_after(inc)
  local about = redis.call('HMGET', key(inc, 'about'), 'name', 'renewed', 'closed')
  if not about[1] then return forget(inc) end
  if about[3] then return redis.call('SREM', 'fleet:live', inc) end
  local is_held = redis.call('GET', 'fleet:lease:' .. about[1]) == inc
  if retain >= 0 and not is_held and moment() - (tonumber(about[2] or 0) or 0) >= retain then close(inc, 'lost', ARGV[4], retain) end
end

local walked = redis.call('SSCAN', 'fleet:live', ARGV[1], 'COUNT', ARGV[2])
for _, inc in ipairs(walked[2]) do guarded(look_after, inc) end
for _, inc in ipairs(redis.call('ZRANDMEMBER', 'fleet:all', 20)) do
  if redis.call('EXISTS', key(inc, 'about')) == 0 then forget(inc) end
end
-- A name whose latest session is gone is forgotten.
local names = redis.call('HRANDFIELD', 'fleet:names', 20, 'WITHVALUES')
for at = 1, #names, 2 do
  if redis.call('EXISTS', key(names[at + 1], 'about')) == 0 then redis.call('HDEL', 'fleet:names', names[at]) end
end
return {walked[1]}
