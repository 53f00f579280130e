structure R :> sig val r : int list ref end = struct val r = ref nil end
