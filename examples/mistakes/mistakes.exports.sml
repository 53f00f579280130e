val r = ref nil
