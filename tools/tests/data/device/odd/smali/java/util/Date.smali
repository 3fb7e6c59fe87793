.class public Ljava/util/Date;
.super Ljava/lang/Object;
