val r : int list ref = ref nil
