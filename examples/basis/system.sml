(* Time, dates, the command line and the operating system. *)

signature TIME = sig
  eqtype time
  exception Time
  val zeroTime : time
  val fromReal : LargeReal.real -> time
  val toReal : time -> LargeReal.real
  val toSeconds : time -> LargeInt.int
  val toMilliseconds : time -> LargeInt.int
  val toMicroseconds : time -> LargeInt.int
  val toNanoseconds : time -> LargeInt.int
  val fromSeconds : LargeInt.int -> time
  val fromMilliseconds : LargeInt.int -> time
  val fromMicroseconds : LargeInt.int -> time
  val fromNanoseconds : LargeInt.int -> time
  val + : time * time -> time
  val - : time * time -> time
  val compare : time * time -> order
  val < : time * time -> bool
  val <= : time * time -> bool
  val > : time * time -> bool
  val >= : time * time -> bool
  val now : unit -> time
  val fmt : int -> time -> string
  val toString : time -> string
  val scan : (char, 'a) StringCvt.reader -> (time, 'a) StringCvt.reader
  val fromString : string -> time option
end

structure Time :> TIME = struct
  type time = int
  exception Time
  val zeroTime = 0
  val fromReal = any and toReal = any and toSeconds = any and toMilliseconds = any and toMicroseconds = any
  val toNanoseconds = any and fromSeconds = any and fromMilliseconds = any and fromMicroseconds = any
  val fromNanoseconds = any and op + = any and op - = any and compare = any
  val op < = any and op <= = any and op > = any and op >= = any
  val now = any and fmt = any and toString = any and scan = any and fromString = any
end

signature DATE = sig
  datatype weekday = Mon | Tue | Wed | Thu | Fri | Sat | Sun
  datatype month = Jan | Feb | Mar | Apr | May | Jun | Jul | Aug | Sep | Oct | Nov | Dec
  type date
  exception Date
  val date : {year : int, month : month, day : int, hour : int, minute : int, second : int, offset : Time.time option}
    -> date
  val year : date -> int
  val month : date -> month
  val day : date -> int
  val hour : date -> int
  val minute : date -> int
  val second : date -> int
  val weekDay : date -> weekday
  val yearDay : date -> int
  val offset : date -> Time.time option
  val isDst : date -> bool option
  val localOffset : unit -> Time.time
  val fromTimeLocal : Time.time -> date
  val fromTimeUniv : Time.time -> date
  val toTime : date -> Time.time
  val compare : date * date -> order
  val fmt : string -> date -> string
  val toString : date -> string
  val scan : (char, 'a) StringCvt.reader -> (date, 'a) StringCvt.reader
  val fromString : string -> date option
end

structure Date :> DATE = struct
  datatype weekday = Mon | Tue | Wed | Thu | Fri | Sat | Sun
  datatype month = Jan | Feb | Mar | Apr | May | Jun | Jul | Aug | Sep | Oct | Nov | Dec
  type date = int
  exception Date
  val date = any and year = any and month = any and day = any and hour = any and minute = any and second = any
  val weekDay = any and yearDay = any and offset = any and isDst = any and localOffset = any
  val fromTimeLocal = any and fromTimeUniv = any and toTime = any and compare = any
  val fmt = any and toString = any and scan = any and fromString = any
end

signature TIMER = sig
  type cpu_timer
  type real_timer
  val startCPUTimer : unit -> cpu_timer
  val checkCPUTimes : cpu_timer
    -> {nongc : {usr : Time.time, sys : Time.time}, gc : {usr : Time.time, sys : Time.time}}
  val checkCPUTimer : cpu_timer -> {usr : Time.time, sys : Time.time}
  val checkGCTime : cpu_timer -> Time.time
  val totalCPUTimer : unit -> cpu_timer
  val startRealTimer : unit -> real_timer
  val checkRealTimer : real_timer -> Time.time
  val totalRealTimer : unit -> real_timer
end

structure Timer :> TIMER = struct
  type cpu_timer = int
  type real_timer = int
  val startCPUTimer = any and checkCPUTimes = any and checkCPUTimer = any and checkGCTime = any and totalCPUTimer = any
  val startRealTimer = any and checkRealTimer = any and totalRealTimer = any
end

signature COMMAND_LINE = sig
  val name : unit -> string
  val arguments : unit -> string list
end

structure CommandLine :> COMMAND_LINE = struct
  val name = any and arguments = any
end

signature OS_FILE_SYS = sig
  type dirstream
  val openDir : string -> dirstream
  val readDir : dirstream -> string option
  val rewindDir : dirstream -> unit
  val closeDir : dirstream -> unit
  val chDir : string -> unit
  val getDir : unit -> string
  val mkDir : string -> unit
  val rmDir : string -> unit
  val isDir : string -> bool
  val isLink : string -> bool
  val readLink : string -> string
  val fullPath : string -> string
  val realPath : string -> string
  val modTime : string -> Time.time
  val fileSize : string -> Position.int
  val setTime : string * Time.time option -> unit
  val remove : string -> unit
  val rename : {old : string, new : string} -> unit
  datatype access_mode = A_READ | A_WRITE | A_EXEC
  val access : string * access_mode list -> bool
  val tmpName : unit -> string
  eqtype file_id
  val fileId : string -> file_id
  val hash : file_id -> word
  val compare : file_id * file_id -> order
end

signature OS_PATH = sig
  exception Path
  exception InvalidArc
  val parentArc : string
  val currentArc : string
  val fromString : string -> {isAbs : bool, vol : string, arcs : string list}
  val toString : {isAbs : bool, vol : string, arcs : string list} -> string
  val validVolume : {isAbs : bool, vol : string} -> bool
  val getVolume : string -> string
  val getParent : string -> string
  val splitDirFile : string -> {dir : string, file : string}
  val joinDirFile : {dir : string, file : string} -> string
  val dir : string -> string
  val file : string -> string
  val splitBaseExt : string -> {base : string, ext : string option}
  val joinBaseExt : {base : string, ext : string option} -> string
  val base : string -> string
  val ext : string -> string option
  val mkCanonical : string -> string
  val isCanonical : string -> bool
  val mkAbsolute : {path : string, relativeTo : string} -> string
  val mkRelative : {path : string, relativeTo : string} -> string
  val isAbsolute : string -> bool
  val isRelative : string -> bool
  val isRoot : string -> bool
  val concat : string * string -> string
  val fromUnixPath : string -> string
  val toUnixPath : string -> string
end

signature OS_PROCESS = sig
  type status
  val success : status
  val failure : status
  val isSuccess : status -> bool
  val system : string -> status
  val atExit : (unit -> unit) -> unit
  val exit : status -> 'a
  val terminate : status -> 'a
  val getEnv : string -> string option
  val sleep : Time.time -> unit
end

signature OS = sig
  structure FileSys : OS_FILE_SYS
  structure Path : OS_PATH
  structure Process : OS_PROCESS
  eqtype syserror
  exception SysErr of string * syserror option
  val errorMsg : syserror -> string
  val errorName : syserror -> string
  val syserror : string -> syserror option
end

structure OS :> OS = struct
  structure FileSys = struct
    type dirstream = int
    val openDir = any and readDir = any and rewindDir = any and closeDir = any and chDir = any and getDir = any
    val mkDir = any and rmDir = any and isDir = any and isLink = any and readLink = any and fullPath = any
    val realPath = any and modTime = any and fileSize = any and setTime = any and remove = any and rename = any
    datatype access_mode = A_READ | A_WRITE | A_EXEC
    val access = any and tmpName = any
    type file_id = int
    val fileId = any and hash = any and compare = any
  end
  structure Path = struct
    exception Path
    exception InvalidArc
    val parentArc = ".." and currentArc = "."
    val fromString = any and toString = any and validVolume = any and getVolume = any and getParent = any
    val splitDirFile = any and joinDirFile = any and dir = any and file = any
    val splitBaseExt = any and joinBaseExt = any and base = any and ext = any
    val mkCanonical = any and isCanonical = any and mkAbsolute = any and mkRelative = any
    val isAbsolute = any and isRelative = any and isRoot = any and concat = any
    val fromUnixPath = any and toUnixPath = any
  end
  structure Process = struct
    type status = int
    val success = 0 and failure = 1
    val isSuccess = any and system = any and atExit = any and exit = any and terminate = any and getEnv = any
    val sleep = any
  end
  type syserror = int
  exception SysErr of string * syserror option
  val errorMsg = any and errorName = any and syserror = any
end
